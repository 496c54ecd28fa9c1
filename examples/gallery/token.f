C     A token ring. The token is a message that goes round, and carries
C     the number of the last ticket. Only the station that holds it
C     takes tickets, so no two stations take the same one.
      PROGRAM TOKEN
      PARAMETER (N = 5, NROUND = 3)
      INPORT (INTEGER) FROM(N)
      OUTPORT (INTEGER) TO(N)
      DO I = 1, N
        CHANNEL(IN=FROM(MOD(I, N) + 1), OUT=TO(I))
      ENDDO
C     The token starts on the way from the last station to the first.
      SEND(TO(N)) 0
      PROCESSDO I = 1, N
        PROCESSCALL STATION(I, NROUND, FROM(I), TO(I))
      ENDPROCESSDO
C     It is there again when all have ended and given back their ports.
      RECEIVE(FROM(1)) LAST
      PRINT *, 'tickets taken', LAST
      END

      PROCESS STATION(ME, NROUND, FROM, TO)
      INPORT (INTEGER) FROM
      OUTPORT (INTEGER) TO
      INTENT(IN) ME, NROUND
      DO I = 1, NROUND
        RECEIVE(FROM) LAST
C       Here this station holds the token, and no other one does.
        NEED = MOD(ME + I, 3)
        DO J = LAST + 1, LAST + NEED
          PRINT *, 'station', ME, 'round', I, 'ticket', J
        ENDDO
        SEND(TO) LAST + NEED
      ENDDO
      END
