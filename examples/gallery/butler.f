C     Five philosophers, and a butler who lets four of them sit down at
C     a time. So one of those who sit always gets both forks. A fork
C     and the butler are the same PROCESS, a semaphore.
      PROGRAM DINE
      PARAMETER (N = 5)
      INPORT (LOGICAL, OUTPORT ()) SEATS, FORK(N)
      OUTPORT (LOGICAL, OUTPORT ()) SEAT(N), LEFT(N), RIGHT(N)
      MERGER(IN=SEATS, OUT=SEAT)
      DO I = 1, N
        MERGER(IN=FORK(I), OUT=LEFT(I), OUT=RIGHT(I))
      ENDDO
      PROCESSES
        PROCESSCALL SEMAPHORE(N - 1, SEATS)
        PROCESSDO I = 1, N
          PROCESSCALL SEMAPHORE(1, FORK(I))
        ENDPROCESSDO
        PROCESSDO I = 1, N
          PROCESSCALL PHILOSOPHER(I, SEAT(I), LEFT(I),
     +      RIGHT(MOD(I, N) + 1))
        ENDPROCESSDO
      ENDPROCESSES
      END

C     Lends NUMBER things. A request says whether its sender wants one
C     or gives one back. Who wants one sends a port for the answer, and
C     waits in a queue while nothing is free.
      PROCESS SEMAPHORE(NUMBER, ASKED)
      PARAMETER (MOST = 8)
      INPORT (LOGICAL, OUTPORT ()) ASKED
      OUTPORT () ANSWER, QUEUE(0:MOST - 1)
      INTEGER FREE, HEAD
      LOGICAL WANTS
      INTENT(IN) NUMBER, ASKED
      FREE = NUMBER
      HEAD = 0
      NWAIT = 0
      LENT = 0
   10 RECEIVE(ASKED, END=20) WANTS, ANSWER
      IF (WANTS) THEN
        MOVEPORT(FROM=ANSWER, TO=QUEUE(MOD(HEAD + NWAIT, MOST)))
        NWAIT = NWAIT + 1
      ELSE
        FREE = FREE + 1
      ENDIF
      IF (FREE .GT. 0 .AND. NWAIT .GT. 0) THEN
        SEND(QUEUE(HEAD))
        HEAD = MOD(HEAD + 1, MOST)
        NWAIT = NWAIT - 1
        FREE = FREE - 1
        LENT = LENT + 1
      ENDIF
      GOTO 10
   20 PRINT *, 'lent', LENT, 'times'
      END

      PROCESS PHILOSOPHER(ME, SEAT, LEFT, RIGHT)
      OUTPORT (LOGICAL, OUTPORT ()) SEAT, LEFT, RIGHT
      INTENT(IN) ME, SEAT, LEFT, RIGHT
      DO I = 1, 3
        CALL TAKE(SEAT)
        CALL TAKE(LEFT)
        CALL TAKE(RIGHT)
        MEALS = MEALS + 1
        CALL GIVE(RIGHT)
        CALL GIVE(LEFT)
        CALL GIVE(SEAT)
      ENDDO
      PRINT *, 'philosopher', ME, 'meals', MEALS
      END

      SUBROUTINE TAKE(THING)
      OUTPORT (LOGICAL, OUTPORT ()) THING
      INPORT () MINE
      OUTPORT () REPLY
      CHANNEL(IN=MINE, OUT=REPLY)
      SEND(THING) .TRUE., REPLY
      RECEIVE(MINE)
      END

      SUBROUTINE GIVE(THING)
      OUTPORT (LOGICAL, OUTPORT ()) THING
      OUTPORT () NOBODY
      SEND(THING) .FALSE., NOBODY
      END
