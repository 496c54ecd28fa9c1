C     A farm: tasks are dealt to the workers in turn, and the results
C     come to one place in any order. A task is a number. Its result is
C     the number of steps from there to 1: an even number is halved, and
C     an odd one becomes three times as large and one more.
      PROGRAM FARM
      PARAMETER (NWORK = 4)
      INPORT (INTEGER) TASK(NWORK)
      OUTPORT (INTEGER) DEAL(NWORK)
      INPORT (INTEGER, INTEGER) RESULT
      OUTPORT (INTEGER, INTEGER) TELL(NWORK)
      DO I = 1, NWORK
        CHANNEL(IN=TASK(I), OUT=DEAL(I))
      ENDDO
      MERGER(IN=RESULT, OUT=TELL)
      PROCESSES
        PROCESSCALL DEALER(DEAL)
        PROCESSDO I = 1, NWORK
          PROCESSCALL WORKER(I, TASK(I), TELL(I))
        ENDPROCESSDO
        PROCESSCALL COLLECT(RESULT)
      ENDPROCESSES
      END

      PROCESS DEALER(DEAL)
      PARAMETER (NWORK = 4, NTASK = 40)
      OUTPORT (INTEGER) DEAL(NWORK)
      INTENT(IN) DEAL
      DO I = 1, NTASK
        SEND(DEAL(MOD(I - 1, NWORK) + 1)) I
      ENDDO
      END

      PROCESS WORKER(ME, TASK, TELL)
      INPORT (INTEGER) TASK
      OUTPORT (INTEGER, INTEGER) TELL
      INTEGER STEPS, SUM
      INTENT(IN) ME, TASK, TELL
      SUM = 0
   10 RECEIVE(TASK, END=20) N
      SEND(TELL) N, STEPS(N)
      SUM = SUM + STEPS(N)
      GOTO 10
   20 PRINT *, 'worker', ME, 'steps in all', SUM
      END

      INTEGER FUNCTION STEPS(N)
      STEPS = 0
      K = N
      DO WHILE (K .NE. 1)
        IF (MOD(K, 2) .EQ. 0) THEN
          K = K/2
        ELSE
          K = 3*K + 1
        ENDIF
        STEPS = STEPS + 1
      ENDDO
      END

C     Puts each result at its own place, so their order doesn't count.
      PROCESS COLLECT(RESULT)
      PARAMETER (NTASK = 40, LENGTH = 10)
      INPORT (INTEGER, INTEGER) RESULT
      INTEGER TABLE(NTASK), ROW(LENGTH)
      INTENT(IN) RESULT
   10 RECEIVE(RESULT, END=20) N, K
      TABLE(N) = K
      GOTO 10
   20 DO I = 0, NTASK - LENGTH, LENGTH
        DO J = 1, LENGTH
          ROW(J) = TABLE(I + J)
        ENDDO
        PRINT *, I + 1, 'to', I + LENGTH, 'steps', ROW
      ENDDO
      END
