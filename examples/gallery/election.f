C     An election in a ring. Each process sends its number on its way.
C     A process hands on the greater numbers and drops the lesser ones.
C     The number that comes home is the greatest of all: its process
C     leads, and lets the others know.
      PROGRAM ELECT
      PARAMETER (N = 6)
      INPORT (LOGICAL OVER, INTEGER NUMBER) FROM(N)
      OUTPORT (LOGICAL OVER, INTEGER NUMBER) TO(N)
      INTEGER NUMBER(N), LEADER(N), SENT(N)
      DO I = 1, N
        CHANNEL(IN=FROM(MOD(I, N) + 1), OUT=TO(I))
        NUMBER(I) = MOD(5*I, 7)
      ENDDO
      PROCESSDO I = 1, N
        PROCESSCALL NODE(NUMBER(I), FROM(I), TO(I), LEADER(I), SENT(I))
      ENDPROCESSDO
      PRINT *, 'numbers', NUMBER
      PRINT *, 'leaders', LEADER
      PRINT *, 'sent', SENT
      END

      PROCESS NODE(MINE, FROM, TO, LEADER, SENT)
      INPORT (LOGICAL OVER, INTEGER NUMBER) FROM
      OUTPORT (LOGICAL OVER, INTEGER NUMBER) TO
      INTEGER LEADER, SENT
      LOGICAL OVER
      INTENT(IN) MINE, FROM, TO
      SEND(TO) .FALSE., MINE
      SENT = 1
      DO WHILE (LEADER .EQ. 0)
        RECEIVE(FROM) OVER, NUMBER
        IF (OVER) THEN
          LEADER = NUMBER
          IF (NUMBER .NE. MINE) SEND(TO) .TRUE., NUMBER
        ELSE IF (NUMBER .GT. MINE) THEN
          SEND(TO) .FALSE., NUMBER
          SENT = SENT + 1
        ELSE IF (NUMBER .EQ. MINE) THEN
          SEND(TO) .TRUE., MINE
        ENDIF
      ENDDO
      END
