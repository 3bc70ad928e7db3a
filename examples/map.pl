% A map in three colours, of which two regions are painted. Each border prunes its two regions, and one after another has
% only one colour left.
colour(1). colour(2). colour(3).
border(A, B) :- colour(A), colour(B), A #\= B.
?- West = 1, North = 2,
   border(West, North) infers most, border(West, South) infers most, border(North, South) infers most,
   border(North, Queensland) infers most, border(South, Queensland) infers most,
   border(Queensland, Wales) infers most, border(South, Wales) infers most,
   border(South, Victoria) infers most, border(Wales, Victoria) infers most.
