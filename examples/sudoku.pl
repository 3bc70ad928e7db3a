% A sudoku of four by four with five numbers given. Each row, column and box has the digits 1 to 4, and what one of them
% rules out is pruned in the others, until all is known.
digit(1). digit(2). digit(3). digit(4).
all(A, B, C, D) :- digit(A), digit(B), A #\= B, digit(C), A #\= C, B #\= C, digit(D), A #\= D, B #\= D, C #\= D.
?- A1 = 1, A2 = 2, B2 = 4, C3 = 4, E4 = 1,
   all(A1, A2, A3, A4) infers most, all(B1, B2, B3, B4) infers most, all(C1, C2, C3, C4) infers most, all(E1, E2, E3, E4) infers most,
   all(A1, B1, C1, E1) infers most, all(A2, B2, C2, E2) infers most, all(A3, B3, C3, E3) infers most, all(A4, B4, C4, E4) infers most,
   all(A1, A2, B1, B2) infers most, all(A3, A4, B3, B4) infers most, all(C1, C2, E1, E2) infers most, all(C3, C4, E3, E4) infers most.
