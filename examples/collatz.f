C     How long it takes from a number to 1, by halves where it is even
C     and three times and one more where it is odd.
      PROGRAM COLLATZ
      INTEGER I, N, STEPS, HIGHEST
      DO I = 1, 9
        N = I
        STEPS = 0
        HIGHEST = N
        DO WHILE (N .NE. 1)
          IF (MOD(N, 2) .EQ. 0) THEN
            N = N/2
          ELSE
            N = 3*N + 1
          ENDIF
          HIGHEST = MAX(HIGHEST, N)
          STEPS = STEPS + 1
        ENDDO
        PRINT *, I, 'steps', STEPS, 'highest', HIGHEST
      ENDDO
      END
