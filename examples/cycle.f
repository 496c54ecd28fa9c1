C     Three processes in a ring, of which each waits for the one before
C     it.
      PROGRAM CYCLE
      INPORT (INTEGER) P(3)
      OUTPORT (INTEGER) Q(3)
      INTEGER I
      DO I = 1, 3
        CHANNEL(IN=P(I), OUT=Q(I))
      ENDDO
      PROCESSES
        PROCESSCALL MEMBER(P(1), Q(2))
        PROCESSCALL MEMBER(P(2), Q(3))
        PROCESSCALL MEMBER(P(3), Q(1))
      ENDPROCESSES
      END

      PROCESS MEMBER(P, Q)
      INPORT (INTEGER) P
      OUTPORT (INTEGER) Q
      INTEGER K
      RECEIVE(P) K
      SEND(Q) K
      END
