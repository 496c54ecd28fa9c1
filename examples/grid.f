C     Processes placed on the nodes of a grid of 2 by 3.
      PROGRAM GRID
      PARAMETER (N = 2, M = 3)
      PROCESSORS(N, M)
      INTEGER SUM(N,M), I, J
      PROCESSES
        PROCESSDO J = 1, M
          PROCESSDO I = 1, N
            PROCESSCALL CELL(I, J, SUM(I,J)) LOCATION(I, J)
          ENDPROCESSDO
        ENDPROCESSDO
        PROCESSCALL WATCH(3) SUBMACHINE(3:5)
      ENDPROCESSES
      PRINT *, SUM
      END

      PROCESS CELL(I, J, SUM)
      INTEGER I, J, SUM
      SUM = 10*I + J
      END

      PROCESS WATCH(N)
      PROCESSORS(2)
      INTEGER N
      PRINT *, 'watch', N
      END
