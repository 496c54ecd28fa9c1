C     The last digits of squares, each printed once. A filter keeps the
C     first number that it gets, and sends on those that differ from it;
C     for the first such number it starts the next filter.
      PROGRAM DISTINCT
      INPORT (INTEGER) GET
      OUTPORT (INTEGER) PUT
      CHANNEL(IN=GET, OUT=PUT)
      PROCESSES
        PROCESSCALL SQUARES(30, PUT)
        PROCESSCALL FILTER(GET)
      ENDPROCESSES
      END

      PROCESS SQUARES(LAST, PUT)
      OUTPORT (INTEGER) PUT
      INTEGER LAST, I
      DO I = 1, LAST
        SEND(PUT) MOD(I*I, 10)
      ENDDO
      ENDCHANNEL(PUT)
      END

      PROCESS FILTER(GET)
      INPORT (INTEGER) GET, NEXT
      OUTPORT (INTEGER) PUT
      INTEGER KEPT
      RECEIVE(PORT=GET, END=10) KEPT
      PRINT *, KEPT
      CHANNEL(IN=NEXT, OUT=PUT)
      PROCESSES
        PROCESSCALL OTHERS(KEPT, GET, PUT)
        PROCESSCALL FILTER(NEXT)
      ENDPROCESSES
10    CONTINUE
      END

      PROCESS OTHERS(KEPT, GET, PUT)
      INPORT (INTEGER) GET
      OUTPORT (INTEGER) PUT
      INTEGER KEPT, N
20    RECEIVE(PORT=GET, END=30) N
      IF (N .NE. KEPT) SEND(PUT) N
      GOTO 20
30    ENDCHANNEL(PUT)
      END
