C     A systolic product of matrices, C = A*B. The rows of A come in
C     from the west, the columns of B from the north. A cell multiplies
C     the two numbers that it gets, adds the product to its element of
C     C, and hands both on, to the east and to the south.
      PROGRAM SYSTOLIC
      PARAMETER (N = 3)
      PROCESSORS(N, N)
      INTEGER A(N, N), B(N, N), C(N, N), ROW(N)
      INPORT (INTEGER) WEST(N, N + 1), NORTH(N + 1, N)
      OUTPORT (INTEGER) EAST(N, 0:N), SOUTH(0:N, N)
      DO I = 1, N
        DO J = 0, N
          CHANNEL(IN=WEST(I, J + 1), OUT=EAST(I, J))
          CHANNEL(IN=NORTH(J + 1, I), OUT=SOUTH(J, I))
        ENDDO
      ENDDO
      DO I = 1, N
        DO J = 1, N
          A(I, J) = I + J
          B(I, J) = I*J - 1
        ENDDO
      ENDDO
C     Main sends both matrices in before the cells begin.
      DO I = 1, N
        DO J = 1, N
          SEND(EAST(I, 0)) A(I, J)
          SEND(SOUTH(0, I)) B(J, I)
        ENDDO
        ENDCHANNEL(EAST(I, 0))
        ENDCHANNEL(SOUTH(0, I))
      ENDDO
      PROCESSDO I = 1, N
        PROCESSDO J = 1, N
          PROCESSCALL CELL(WEST(I, J), NORTH(I, J), EAST(I, J),
     +      SOUTH(I, J), C(I, J)) LOCATION(I, J)
        ENDPROCESSDO
      ENDPROCESSDO
      DO I = 1, N
        DO J = 1, N
          ROW(J) = C(I, J)
        ENDDO
        PRINT *, 'row', I, ROW
      ENDDO
      END

      PROCESS CELL(WEST, NORTH, EAST, SOUTH, C)
      INPORT (INTEGER) WEST, NORTH
      OUTPORT (INTEGER) EAST, SOUTH
      INTEGER A, B, C
      INTENT(IN) WEST, NORTH, EAST, SOUTH
      C = 0
   10 RECEIVE(WEST, END=20) A
      RECEIVE(NORTH) B
      C = C + A*B
      SEND(EAST) A
      SEND(SOUTH) B
      GOTO 10
   20 END
