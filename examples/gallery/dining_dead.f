C     Philosophers who each take the left fork first. A fork is a
C     process, which answers one neighbour and lets the other one wait.
C     So nobody eats.
      PROGRAM DINE
      PARAMETER (N = 3)
      INPORT (INTEGER, OUTPORT (INTEGER)) ASKED(N)
      OUTPORT (INTEGER, OUTPORT (INTEGER)) LEFT(N), RIGHT(N)
      DO I = 1, N
        MERGER(IN=ASKED(I), OUT=LEFT(I), OUT=RIGHT(I))
      ENDDO
      PROCESSES
        PROCESSDO I = 1, N
          PROCESSCALL FORK(ASKED(I))
        ENDPROCESSDO
        PROCESSDO I = 1, N
          PROCESSCALL PHILOSOPHER(I, LEFT(I), RIGHT(MOD(I, N) + 1))
        ENDPROCESSDO
      ENDPROCESSES
      END

      PROCESS FORK(ASKED)
      INPORT (INTEGER, OUTPORT (INTEGER)) ASKED
      OUTPORT (INTEGER) ANSWER, LATER
      LOGICAL TAKEN, WANTED
   10 RECEIVE(ASKED, END=20) KIND, ANSWER
      IF (KIND .EQ. 1) THEN
        IF (TAKEN) THEN
          MOVEPORT(FROM=ANSWER, TO=LATER)
          WANTED = .TRUE.
        ELSE
          SEND(ANSWER) 1
          TAKEN = .TRUE.
        ENDIF
      ELSE
        TAKEN = WANTED
        IF (WANTED) SEND(LATER) 1
        WANTED = .FALSE.
      ENDIF
      GOTO 10
   20 PRINT *, 'fork put away'
      END

      PROCESS PHILOSOPHER(ME, ONE, OTHER)
      OUTPORT (INTEGER, OUTPORT (INTEGER)) ONE, OTHER
      INTENT(IN) ME
      CALL TAKE(ONE)
      CALL TAKE(OTHER)
      PRINT *, 'philosopher', ME, 'eats'
      CALL GIVE(ONE)
      CALL GIVE(OTHER)
      ENDCHANNEL(ONE)
      ENDCHANNEL(OTHER)
      END

      SUBROUTINE TAKE(FORK)
      OUTPORT (INTEGER, OUTPORT (INTEGER)) FORK
      INPORT (INTEGER) MINE
      OUTPORT (INTEGER) REPLY
      CHANNEL(IN=MINE, OUT=REPLY)
      SEND(FORK) 1, REPLY
      RECEIVE(MINE) K
      END

      SUBROUTINE GIVE(FORK)
      OUTPORT (INTEGER, OUTPORT (INTEGER)) FORK
      OUTPORT (INTEGER) NOBODY
      SEND(FORK) 0, NOBODY
      END
