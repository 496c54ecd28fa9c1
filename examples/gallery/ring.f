C     A ring: each process has a number, hands on what it gets, and
C     knows the sum of all when every number has been round.
      PROGRAM RING
      PARAMETER (N = 6)
      INPORT (INTEGER) FROM(N)
      OUTPORT (INTEGER) TO(N)
      INTEGER TOTAL(N)
      DO I = 1, N
        CHANNEL(IN=FROM(MOD(I, N) + 1), OUT=TO(I))
      ENDDO
      PROCESSDO I = 1, N
        PROCESSCALL NODE(I, N, I*I, FROM(I), TO(I), TOTAL(I))
      ENDPROCESSDO
      PRINT *, 'totals', TOTAL
      END

      PROCESS NODE(ME, N, VALUE, FROM, TO, TOTAL)
      INTEGER VALUE, TOTAL, HELD, HOP
      INPORT (INTEGER) FROM
      OUTPORT (INTEGER) TO
      INTENT(IN) ME, N, VALUE
      TOTAL = VALUE
      HELD = VALUE
      DO HOP = 1, N - 1
        SEND(TO) HELD
        RECEIVE(FROM) HELD
        TOTAL = TOTAL + HELD
      ENDDO
      PRINT *, 'node', ME, 'total', TOTAL
      END
