      PROGRAM COMPUTE
C     Eight processes that compute by themselves, each about as long as
C     any other: loops, products of matrices, and counts of the numbers
C     that are no product of two numbers above 9. One has a frame of
C     60,000 words.
      INTEGER R(8)
      PROCESSES
        PROCESSCALL LOOPS(1, R(1))
        PROCESSCALL LOOPS(2, R(2))
        PROCESSCALL CROSS(3, R(3))
        PROCESSCALL CROSS(4, R(4))
        PROCESSCALL PRODUCTS(5, R(5))
        PROCESSCALL PRODUCTS(6, R(6))
        PROCESSCALL LOOPS(7, R(7))
        PROCESSCALL WIDE(8, R(8))
      ENDPROCESSES
      PRINT *, R
      END

      PROCESS LOOPS(N, S)
      INTENT(IN) N
      INTEGER S
      S = 0
      DO I = 1, 3000000
        S = MOD(S + I*N, 1000003)
      ENDDO
      END

      PROCESS CROSS(N, S)
      INTENT(IN) N
      INTEGER S
      LOGICAL OUT(3000)
      DO K = 1, 350
        DO I = 10, 3000
          OUT(I) = .FALSE.
        ENDDO
        S = N
        DO I = 10, 3000
          IF (.NOT. OUT(I)) THEN
            S = S + 1
            DO J = 10*I, 3000, I
              OUT(J) = .TRUE.
            ENDDO
          ENDIF
        ENDDO
      ENDDO
      END

      PROCESS PRODUCTS(N, S)
      INTENT(IN) N
      INTEGER S
      INTEGER A(50,50), B(50,50)
      DO J = 1, 50
        DO I = 1, 50
          A(I,J) = MOD(I*J, 17)
          B(I,J) = MOD(I + J*N, 13)
        ENDDO
      ENDDO
      S = 0
      DO L = 1, 14
        DO J = 1, 50
          DO I = 1, 50
            M = 0
            DO K = 1, 50
              M = M + A(I,K)*B(K,J)
            ENDDO
            S = MOD(S + M, 1000003)
          ENDDO
        ENDDO
      ENDDO
      END

      PROCESS WIDE(N, S)
      INTENT(IN) N
      INTEGER S
      LOGICAL OUT(60000)
      DO K = 1, 13
        DO I = 10, 60000
          OUT(I) = .FALSE.
        ENDDO
        S = N
        DO I = 10, 60000
          IF (.NOT. OUT(I)) THEN
            S = S + 1
            DO J = 10*I, 60000, I
              OUT(J) = .TRUE.
            ENDDO
          ENDIF
        ENDDO
      ENDDO
      END
