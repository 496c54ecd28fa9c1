      PROGRAM MATRIX
C     The product of two matrices of 200 by 200, the second one and the
C     product a column at a time.
      PARAMETER (N = 200)
      INTEGER A(N,N), B(N), I, J, K, S, T
      DO J = 1, N
        DO I = 1, N
          A(I,J) = MOD(I*J, 17)
        ENDDO
      ENDDO
      T = 0
      DO J = 1, N
        DO K = 1, N
          B(K) = MOD(K + J, 13)
        ENDDO
        DO I = 1, N
          S = 0
          DO K = 1, N
            S = S + A(I,K)*B(K)
          ENDDO
          T = MOD(T + S, 1000003)
        ENDDO
      ENDDO
      PRINT *, T
      END
