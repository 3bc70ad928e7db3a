% Three houses in a row: who keeps the zebra? Two orders of the houses are possible, and in both the Japanese lives in the
% blue house and keeps the zebra: the three are one variable, though its number is still open.
house(1). house(2). house(3).
differ(A, B, C) :- house(A), house(B), A #\= B, house(C), A #\= C, B #\= C.
left_of(A, B) :- plus(A, 1, B).
zebra(English, Spanish, Japanese, Red, Green, Blue, Jaguar, Snail, Zebra) :-
    differ(English, Spanish, Japanese), differ(Red, Green, Blue), differ(Jaguar, Snail, Zebra),
    English = Red, Spanish = Jaguar, left_of(Snail, Japanese), left_of(Snail, Blue).
?- zebra(English, Spanish, Japanese, Red, Green, Blue, Jaguar, Snail, Zebra) infers most.
