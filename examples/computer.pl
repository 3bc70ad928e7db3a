% A computer in a small case with a supply of 300 watts. The case leaves one board, the board one socket, and of the two
% processors for it the supply can feed only one.
processor(p5, round, 65).
processor(p7, round, 95).
processor(p9, square, 150).
board(m1, round, small).
board(m2, square, large).
case(cube, small).
case(tower, small).
case(tower, large).
supply(300).
supply(500).
fits(Processor, Board, Case, Supply) :- case(Case, Size), board(Board, Socket, Size), processor(Processor, Socket, Watts),
    supply(Supply), plus(Watts, 210, Needed), Needed #=< Supply.
?- Case = cube, Supply = 300, fits(Processor, Board, Case, Supply) infers most.
