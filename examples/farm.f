C     A farm: four workers, each with a number and a place of an array,
C     into which its result is copied back when all have ended.
      PROGRAM FARM
      PARAMETER (N = 4)
      INTEGER RESULT(N), I
      PROCESSDO I = 1, N
        PROCESSCALL WORKER(I, RESULT(I))
      ENDPROCESSDO
      PRINT *, 'results', RESULT
      END

      PROCESS WORKER(I, RESULT)
      INTEGER I, RESULT, K
      INTENT(IN) I
      RESULT = 0
      DO K = 1, 100*I
        RESULT = RESULT + MOD(K, 7)
      ENDDO
      PRINT *, 'worker', I
      END
