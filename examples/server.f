C     A server of squares. Each client sends a port for the answer with
C     its question, and the server sends it there.
      PROGRAM SERVES
      INPORT (INTEGER, OUTPORT (INTEGER)) ASKED
      OUTPORT (INTEGER, OUTPORT (INTEGER)) ASK
      CHANNEL(IN=ASKED, OUT=ASK)
      PROCESSES
        PROCESSCALL SERVER(ASKED)
        PROCESSCALL CLIENT(7, ASK)
      ENDPROCESSES
      END

      PROCESS SERVER(ASKED)
      INPORT (INTEGER, OUTPORT (INTEGER)) ASKED
      OUTPORT (INTEGER) ANSWER
      INTEGER N
10    RECEIVE(PORT=ASKED, END=20) N, ANSWER
      SEND(ANSWER) N*N
      GOTO 10
20    PRINT *, 'no more questions'
      END

      PROCESS CLIENT(N, ASK)
      OUTPORT (INTEGER, OUTPORT (INTEGER)) ASK
      INPORT (INTEGER) ANSWER
      OUTPORT (INTEGER) REPLY
      INTEGER N, I, K
      DO I = 1, 3
        CHANNEL(IN=ANSWER, OUT=REPLY)
        SEND(ASK) N + I, REPLY
        RECEIVE(ANSWER) K
        PRINT *, N + I, 'squared is', K
      ENDDO
      ENDCHANNEL(ASK)
      END
