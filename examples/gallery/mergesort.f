C     Mergesort. A task is a list, with the port on which its sender
C     wants the sorted list. A process with more than one number sends
C     the halves to two of its like, and merges what comes back.
      PROGRAM SORTS
      PARAMETER (N = 16)
      INTEGER LIST(N)
      INPORT (INTEGER K, INTEGER X(K),
     +  OUTPORT (INTEGER K, INTEGER X(K))) TASK
      OUTPORT (INTEGER K, INTEGER X(K),
     +  OUTPORT (INTEGER K, INTEGER X(K))) GIVE
      INPORT (INTEGER K, INTEGER X(K)) BACK
      OUTPORT (INTEGER K, INTEGER X(K)) REPLY
      DO I = 1, N
        LIST(I) = MOD(53*I, 97)
      ENDDO
      PRINT *, 'unsorted', LIST
      CHANNEL(IN=TASK, OUT=GIVE)
      CHANNEL(IN=BACK, OUT=REPLY)
      SEND(GIVE) N, LIST, REPLY
      PROCESSES
        PROCESSCALL SORTER(TASK)
      ENDPROCESSES
      RECEIVE(BACK) K, LIST
      PRINT *, 'sorted', LIST
      END

      PROCESS SORTER(TASK)
      PARAMETER (N = 16)
      INPORT (INTEGER K, INTEGER X(K),
     +  OUTPORT (INTEGER K, INTEGER X(K))) TASK, HALF(2)
      OUTPORT (INTEGER K, INTEGER X(K),
     +  OUTPORT (INTEGER K, INTEGER X(K))) GIVE
      INPORT (INTEGER K, INTEGER X(K)) BACK(2)
      OUTPORT (INTEGER K, INTEGER X(K)) ANSWER, REPLY
      INTEGER LIST(N), PART(N), LEFT(N), RIGHT(N)
      INTENT(IN) TASK
      RECEIVE(TASK) K, LIST, ANSWER
      IF (K .GT. 1) THEN
        NEXT = 0
        DO L = 1, 2
C         The first half has K/2 numbers, the second one the others.
          M = K/2
          IF (L .EQ. 2) M = K - M
          DO I = 1, M
            PART(I) = LIST(NEXT + I)
          ENDDO
          NEXT = NEXT + M
          CHANNEL(IN=HALF(L), OUT=GIVE)
          CHANNEL(IN=BACK(L), OUT=REPLY)
          SEND(GIVE) M, PART, REPLY
        ENDDO
        PROCESSDO L = 1, 2
          PROCESSCALL SORTER(HALF(L))
        ENDPROCESSDO
        RECEIVE(BACK(1)) I, LEFT
        RECEIVE(BACK(2)) J, RIGHT
        CALL MERGE(I, LEFT, J, RIGHT, LIST)
      ENDIF
      SEND(ANSWER) K, LIST
      END

      SUBROUTINE MERGE(NLEFT, LEFT, NRIGHT, RIGHT, LIST)
      PARAMETER (N = 16)
      INTEGER LEFT(N), RIGHT(N), LIST(N)
      LOGICAL LOWER
      INTENT(IN) NLEFT, LEFT, NRIGHT, RIGHT
      I = 1
      J = 1
      DO K = 1, NLEFT + NRIGHT
        IF (I .GT. NLEFT) THEN
          LOWER = .FALSE.
        ELSE IF (J .GT. NRIGHT) THEN
          LOWER = .TRUE.
        ELSE
          LOWER = LEFT(I) .LE. RIGHT(J)
        ENDIF
        IF (LOWER) THEN
          LIST(K) = LEFT(I)
          I = I + 1
        ELSE
          LIST(K) = RIGHT(J)
          J = J + 1
        ENDIF
      ENDDO
      END
