% Both facts have twice the same atom. What they have in common is that the arguments are equal, so the two variables
% become one.
eq(a, a).
eq(b, b).
?- eq(X, Y) infers most.
