C     A barrier. Workers go through the same phases, and nobody begins a
C     phase before all have done the one before it. A worker that has
C     done one sends a port to the barrier and waits there. When all
C     have come, the barrier answers each of them.
      PROGRAM PHASES
      PARAMETER (N = 4)
      INPORT (INTEGER PHASE, INTEGER WORK, OUTPORT ()) COME
      OUTPORT (INTEGER PHASE, INTEGER WORK, OUTPORT ()) DONE(N)
      MERGER(IN=COME, OUT=DONE)
      PROCESSES
        PROCESSCALL BARRIER(COME)
        PROCESSDO I = 1, N
          PROCESSCALL WORKER(I, DONE(I))
        ENDPROCESSDO
      ENDPROCESSES
      END

      PROCESS BARRIER(COME)
      PARAMETER (N = 4)
      INPORT (INTEGER PHASE, INTEGER WORK, OUTPORT ()) COME
      OUTPORT () LATCH(N)
      INTEGER PHASE, WORK, SUM
      LOGICAL SAME
      INTENT(IN) COME
   10 SUM = 0
      SAME = .TRUE.
      DO I = 1, N
        RECEIVE(COME, END=20) PHASE, WORK, LATCH(I)
        IF (I .EQ. 1) K = PHASE
        SAME = SAME .AND. PHASE .EQ. K
        SUM = SUM + WORK
      ENDDO
      PRINT *, 'phase', K, 'done by all', SAME, 'work', SUM
      DO I = 1, N
        SEND(LATCH(I))
      ENDDO
      GOTO 10
   20 END

      PROCESS WORKER(ME, DONE)
      PARAMETER (NPHASE = 3)
      OUTPORT (INTEGER PHASE, INTEGER WORK, OUTPORT ()) DONE
      INPORT () WAIT
      OUTPORT () LATCH
      INTEGER PHASE, WORK
      INTENT(IN) ME, DONE
      DO PHASE = 1, NPHASE
        WORK = 0
        DO I = 1, 10*ME*PHASE
          WORK = WORK + 1
        ENDDO
        CHANNEL(IN=WAIT, OUT=LATCH)
        SEND(DONE) PHASE, WORK, LATCH
        RECEIVE(WAIT)
      ENDDO
      END
