C     A farm that counts the numbers that no square over 1 divides. Each
C     worker has a range of its own and needs nothing from the others.
      PROGRAM FARM
      PARAMETER (N = 4, LENGTH = 50)
      INTEGER COUNT(N)
      PROCESSDO I = 1, N
        PROCESSCALL WORKER((I - 1)*LENGTH + 1, I*LENGTH, COUNT(I))
      ENDPROCESSDO
      J = 0
      DO I = 1, N
        J = J + COUNT(I)
      ENDDO
      PRINT *, 'squarefree up to', N*LENGTH, J, 'by worker', COUNT
      END

      PROCESS WORKER(LOW, IHIGH, NUMBER)
      PARAMETER (LENGTH = 50)
      LOGICAL OUT(0:LENGTH - 1)
      INTEGER FIRST, SQUARE
      INTENT(IN) LOW, IHIGH
      K = 2
      DO WHILE (K*K .LE. IHIGH)
        SQUARE = K*K
        FIRST = (LOW + SQUARE - 1)/SQUARE*SQUARE
        DO J = FIRST, IHIGH, SQUARE
          OUT(J - LOW) = .TRUE.
        ENDDO
        K = K + 1
      ENDDO
      NUMBER = 0
      DO J = LOW, IHIGH
        IF (.NOT. OUT(J - LOW)) NUMBER = NUMBER + 1
      ENDDO
      PRINT *, LOW, IHIGH, NUMBER
      END
