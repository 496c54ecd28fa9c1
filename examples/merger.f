C     Two senders on one inport. Which of their numbers comes first is
C     a matter of the schedule: `fmc check` says so.
      PROGRAM MERGES
      INPORT (INTEGER) P
      OUTPORT (INTEGER) Q(2)
      MERGER(IN=P, OUT=Q)
      PROCESSES
        PROCESSCALL SENDER(1, Q(1))
        PROCESSCALL SENDER(2, Q(2))
        PROCESSCALL READER(P)
      ENDPROCESSES
      END

      PROCESS SENDER(N, Q)
      OUTPORT (INTEGER) Q
      INTEGER N, I
      DO I = 1, 2
        SEND(Q) 10*N + I
      ENDDO
      ENDCHANNEL(Q)
      END

      PROCESS READER(P)
      INPORT (INTEGER) P
      INTEGER K, STATUS
      STATUS = 0
      DO WHILE (STATUS .EQ. 0)
        RECEIVE(PORT=P, IOSTAT=STATUS) K
        IF (STATUS .EQ. 0) PRINT *, K
      ENDDO
      PRINT *, 'all'
      END
