      PROGRAM LOOP
      INTEGER I, S
      S = 0
      DO I = 1, 3000000
        S = MOD(S + I, 1000003)
      ENDDO
      PRINT *, S
      END
