C     A manager and its workers. An idle worker asks for a task. Its
C     question has the port on which the task is to come; -1 means that
C     there are no more tasks.
      PROGRAM STUDY
      PARAMETER (NWORK = 3, NTASK = 10)
      INPORT (OUTPORT (INTEGER)) ASKED
      OUTPORT (OUTPORT (INTEGER)) ASK(NWORK)
      INPORT (INTEGER, INTEGER) RESULT
      OUTPORT (INTEGER, INTEGER) TELL(NWORK)
      MERGER(IN=ASKED, OUT=ASK)
      MERGER(IN=RESULT, OUT=TELL)
      PROCESSES
        PROCESSCALL MANAGER(NTASK, ASKED)
        PROCESSDO I = 1, NWORK
          PROCESSCALL WORKER(ASK(I), TELL(I))
        ENDPROCESSDO
        PROCESSCALL COLLECT(RESULT)
      ENDPROCESSES
      END

      PROCESS MANAGER(NTASK, ASKED)
      INPORT (OUTPORT (INTEGER)) ASKED
      OUTPORT (INTEGER) REPLY
      INTENT(IN) NTASK
      NEXT = 0
   10 RECEIVE(ASKED, END=20) REPLY
      NEXT = NEXT + 1
      IF (NEXT .LE. NTASK) THEN
        SEND(REPLY) NEXT
      ELSE
        SEND(REPLY) -1
      ENDIF
      GOTO 10
   20 PRINT *, 'requests served', NEXT
      END

      PROCESS WORKER(ASK, TELL)
      OUTPORT (OUTPORT (INTEGER)) ASK
      OUTPORT (INTEGER, INTEGER) TELL
      INPORT (INTEGER) TASK
      OUTPORT (INTEGER) REPLY
      INTEGER VALUE
   10 CHANNEL(IN=TASK, OUT=REPLY)
      SEND(ASK) REPLY
      RECEIVE(TASK) K
      IF (K .LT. 0) GOTO 20
      SEND(TELL) K, VALUE(K)
      GOTO 10
   20 ENDCHANNEL(ASK)
      ENDCHANNEL(TELL)
      END

      PROCESS COLLECT(RESULT)
      INPORT (INTEGER, INTEGER) RESULT
      INTEGER BEST, AT
      BEST = -1
      N = 0
   10 RECEIVE(RESULT, END=20) K, M
      N = N + 1
      IF (M .GT. BEST) THEN
        BEST = M
        AT = K
      ENDIF
      GOTO 10
   20 PRINT *, 'results', N, 'best', BEST, 'at', AT
      END

      INTEGER FUNCTION VALUE(K)
      VALUE = 100 - (K - 7)**2
      END
