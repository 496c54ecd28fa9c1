C     A process that does other work while no message is there.
      PROGRAM POLLS
      INPORT (INTEGER) P
      OUTPORT (INTEGER) Q
      CHANNEL(IN=P, OUT=Q)
      PROCESSES
        PROCESSCALL POLL(P)
        PROCESSCALL SLOW(Q)
      ENDPROCESSES
      END

      PROCESS POLL(P)
      INPORT (INTEGER) P
      LOGICAL NONE
      INTEGER K
      NONE = .TRUE.
      DO WHILE (NONE)
        PROBE(P, EMPTY=NONE)
      ENDDO
      RECEIVE(P) K
      PRINT *, 'got', K
      END

      PROCESS SLOW(Q)
      OUTPORT (INTEGER) Q
      INTEGER I
      DO I = 1, 500
        CONTINUE
      ENDDO
      SEND(Q) I
      END
