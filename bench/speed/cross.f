C     Counts the numbers from 10 to 60,000 that are no product of two
C     numbers above 9: of each that is left, the multiples from ten
C     times on are crossed out.
      PROGRAM CROSS
      PARAMETER (N = 60000)
      LOGICAL OUT(N)
      INTEGER I, J, K, COUNT
      DO K = 1, 15
        DO I = 10, N
          OUT(I) = .FALSE.
        ENDDO
        COUNT = 0
        DO I = 10, N
          IF (.NOT. OUT(I)) THEN
            COUNT = COUNT + 1
            DO J = 10*I, N, I
              OUT(J) = .TRUE.
            ENDDO
          ENDIF
        ENDDO
      ENDDO
      PRINT *, COUNT
      END
