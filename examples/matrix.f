C     The product of two matrices, by a SUBROUTINE.
      PROGRAM MATRIX
      INTEGER A(2,3), B(3,2), C(2,2), I, J
      DO 10 J = 1, 3
      DO 10 I = 1, 2
        A(I,J) = 10*I + J
10      B(J,I) = I - J
      CALL PRODUCT(A, B, C)
      PRINT *, 'by columns', C
      DO I = 1, 2
        PRINT *, 'row', I, C(I,1), C(I,2)
      ENDDO
      END
      SUBROUTINE PRODUCT(A, B, C)
      INTEGER A(2,3), B(3,2), C(2,2), I, J, K
      INTENT(IN) A, B
      INTENT(OUT) C
      DO 20 I = 1, 2
      DO 20 J = 1, 2
        C(I,J) = 0
        DO 20 K = 1, 3
20        C(I,J) = C(I,J) + A(I,K)*B(K,J)
      END
