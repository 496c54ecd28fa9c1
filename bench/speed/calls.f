      PROGRAM CALLS
      INTEGER I, S
      S = 0
      DO I = 1, 1000000
        CALL ADD(S, I)
      ENDDO
      PRINT *, S
      END
      SUBROUTINE ADD(S, I)
      INTEGER S, I
      S = MOD(S + I, 1000003)
      END
