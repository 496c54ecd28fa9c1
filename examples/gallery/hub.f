C     A hub with a table of ports. Subscribers send it an outport, all
C     get the same messages, and one is let go on the way.
      PROGRAM NEWS
      PARAMETER (N = 3)
      INPORT (OUTPORT (INTEGER)) ENTRY
      OUTPORT (OUTPORT (INTEGER)) DOOR(N)
      MERGER(IN=ENTRY, OUT=DOOR)
      PROCESSES
        PROCESSCALL HUB(ENTRY)
        PROCESSDO I = 1, N
          PROCESSCALL SUBSCRIBER(I, DOOR(I))
        ENDPROCESSDO
      ENDPROCESSES
      END

      PROCESS HUB(ENTRY)
      PARAMETER (LIMIT = 10)
      INPORT (OUTPORT (INTEGER)) ENTRY
      OUTPORT (INTEGER) TABLE(LIMIT), NEW
      N = 0
   10 RECEIVE(ENTRY, END=20) NEW
      N = N + 1
      MOVEPORT(FROM=NEW, TO=TABLE(N))
      GOTO 10
   20 DO K = 1, 4
        DO I = 1, N
          SEND(TABLE(I)) 10*K + N
        ENDDO
        IF (K .EQ. 2) THEN
          ENDCHANNEL(TABLE(1))
          DO I = 2, N
            MOVEPORT(FROM=TABLE(I), TO=TABLE(I - 1))
          ENDDO
          N = N - 1
        ENDIF
      ENDDO
      END

      PROCESS SUBSCRIBER(ME, DOOR)
      OUTPORT (OUTPORT (INTEGER)) DOOR
      INPORT (INTEGER) NEWS
      OUTPORT (INTEGER) MINE
      INTENT(IN) ME
      CHANNEL(IN=NEWS, OUT=MINE)
      SEND(DOOR) MINE
      ENDCHANNEL(DOOR)
      J = 0
   10 RECEIVE(NEWS, END=20) K
      J = J + K
      GOTO 10
   20 PRINT *, 'subscriber', ME, 'sum', J
      END
