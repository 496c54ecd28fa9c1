C     Greatest common divisors, by a FUNCTION that other expressions
C     refer to.
      PROGRAM DIVISOR
      INTEGER GCD
      PRINT *, GCD(1071, 462), GCD(17, 5)
      PRINT *, 'three numbers', GCD(GCD(84, 126), 210)
      PRINT *, 'least common multiple', 21/GCD(21, 6)*6
      END
      INTEGER FUNCTION GCD(M, N)
      INTEGER M, N, A, B, R
      A = M
      B = N
      DO WHILE (B .NE. 0)
        R = MOD(A, B)
        A = B
        B = R
      ENDDO
      GCD = ABS(A)
      END
