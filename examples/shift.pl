% Who works the early shift? Each fact that matches has anna, so Who is anna; the ward may be either one.
shift(anna, early, ward1).
shift(anna, early, ward2).
shift(ben, late, ward1).
?- shift(Who, early, Where) infers most.
