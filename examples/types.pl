% The type of a function that applies one function after another. Every derivation of a type gives the same one, so the
% goal is narrowed to it, and what is open in it may be any type.
type(Names, variable(X), T) :- known(X, T, Names).
type(Names, function(X, Body), to(S, T)) :- type(with(X, S, Names), Body, T).
type(Names, apply(F, X), T) :- type(Names, F, to(S, T)), type(Names, X, S).
known(X, T, with(X, T, Names)).
known(X, T, with(Y, S, Names)) :- known(X, T, Names).
?- type(nothing, function(f, function(g, function(x, apply(variable(f), apply(variable(g), variable(x)))))), T) infers most.
