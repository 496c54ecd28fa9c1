C     A ring of four processes. Each one gets the end of the channel to
C     its right neighbour in a message, so that the ring closes itself;
C     then a number goes round it twice.
      PROGRAM RING
      PARAMETER (N = 4)
      INPORT (INTEGER) IN(N)
      OUTPORT (INTEGER) OUT(N)
      INPORT (OUTPORT (INTEGER)) GET(N)
      OUTPORT (OUTPORT (INTEGER)) PUT(N)
      INTEGER I
      DO I = 1, N
        CHANNEL(IN=IN(I), OUT=OUT(I))
        CHANNEL(IN=GET(I), OUT=PUT(I))
      ENDDO
      DO I = 1, N
        SEND(PUT(I)) OUT(MOD(I, N) + 1)
      ENDDO
      PROCESSDO I = 1, N
        PROCESSCALL MEMBER(I, IN(I), GET(I))
      ENDPROCESSDO
      END

      PROCESS MEMBER(NUMBER, LEFT, GET)
      INTEGER NUMBER, TURN, K
      INPORT (INTEGER) LEFT
      OUTPORT (INTEGER) RIGHT
      INPORT (OUTPORT (INTEGER)) GET
      RECEIVE(GET) RIGHT
      IF (NUMBER .EQ. 1) SEND(RIGHT) 100
      DO TURN = 1, 2
        RECEIVE(LEFT) K
        PRINT *, 'member', NUMBER, 'got', K
        IF (NUMBER .NE. 1 .OR. TURN .EQ. 1) SEND(RIGHT) K + NUMBER
      ENDDO
      END
