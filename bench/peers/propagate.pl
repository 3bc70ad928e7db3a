% The run of a query's annotated goals in Prolog, for SWI-Prolog and GNU Prolog: turns in wake order, finite domains as
% ascending lists of intervals Low-High, the modes most, unique and consistent, least generalisation of all answers.
% It knows no depth: a search has to end.
%
% A text gives its clauses and, in a file to be read, the term query(Names, Store, Given, Goals, Indices, Watchers):
%   Names     a list Name=Variable of what is written
%   Store     the query's variables
%   Given     its equations and domains, as a body
%   Goals     the annotated goals, each Mode-Goal
%   Indices   each goal's list of places in the store
%   Watchers  each variable's list of goals
% Store, Goals, Indices and Watchers are terms of blocks of 200, as a term of GNU Prolog has 255 arguments at most.
%
% run(list, File) gathers a goal's answers by findall and generalises their list. With step each answer is joined to what
% is known so far, and the search stops where no other answer can change it. With plain it is what a user would write for
% a single goal: findall, a generalisation of the list, and no second turn.

:- if(current_prolog_flag(bounded, true)).

% GNU Prolog has variables with domains.
:- initialization(fd_set_vector_max(300000)).
free(Term) :- generic_var(Term).
remember(Value) :- g_assign(known, Value).
recalled(Value) :- g_read(known, Value).
constrain(Term, _) :- nonvar(Term), \+ generic_var(Term), \+ integer(Term), !, fail.
constrain(Term, Domain) :- values(Domain, Values), fd_domain(Term, Values).
domain_of(Variable, Domain) :- fd_var(Variable), !, fd_dom(Variable, Values), intervals(Values, Domain).
domain_of(_, any).
plain(Term, Variables, Plains, Copy) :- generic_var(Term), !, same_place(Variables, Plains, Term, Copy).
plain(Term, _, _, Term) :- atomic(Term), !.
plain(Term, Variables, Plains, Copy) :- Term =.. [Name|Terms], plains(Terms, Variables, Plains, Copies), Copy =.. [Name|Copies].
plains([], _, _, []).
plains([Term|Terms], Variables, Plains, [Copy|Copies]) :- plain(Term, Variables, Plains, Copy), plains(Terms, Variables, Plains, Copies).
same_place([Variable|_], [Plain|_], Term, Plain) :- Variable == Term, !.
same_place([_|Variables], [_|Plains], Term, Plain) :- same_place(Variables, Plains, Term, Plain).

:- else.

% SWI-Prolog has attributes.
free(Term) :- var(Term).
remember(Value) :- nb_setval(known, Value).
recalled(Value) :- nb_getval(known, Value).
constrain(Term, Domain) :- integer(Term), !, within(Domain, Term).
constrain(Term, Domain) :- var(Term), ( get_attr(Term, user, Old) -> meet(Old, Domain, New) ; New = Domain ), keep(New, Term).
keep([Value-Value], Term) :- !, del_attr(Term, user), Term = Value.
keep([Interval|Intervals], Term) :- put_attr(Term, user, [Interval|Intervals]).
attr_unify_hook(Domain, Term) :- constrain(Term, Domain).
domain_of(Variable, Domain) :- get_attr(Variable, user, Known), !, Domain = Known.
domain_of(_, any).
plain(Term, Variables, Plains, Copy) :- copy_term_nat(Term-Variables, Copy-Plains).
within([Low-High|Intervals], Value) :- ( Value > High -> within(Intervals, Value) ; Value >= Low ).
meet([], _, []) :- !.
meet(_, [], []) :- !.
meet([Low-High|Left], [From-To|Right], Meet) :-
    Start is max(Low, From), End is min(High, To),
    ( Start =< End -> Meet = [Start-End|Rest] ; Meet = Rest ),
    ( High < To -> meet(Left, [From-To|Right], Rest) ; meet([Low-High|Left], Right, Rest) ).

:- endif.

% plus of the texts, over integers of which at most one is not known when it is met. Their comparisons are Prolog's.
sum(A, B, C) :- integer(A), integer(B), !, C is A + B.
sum(A, B, C) :- integer(A), !, B is C - A.
sum(A, B, C) :- A is C - B.

% Domains.
values([], []).
values([Low-High|Intervals], [Low|Values]) :- ( Low =:= High -> values(Intervals, Values) ; Next is Low + 1, values([Next-High|Intervals], Values) ).
intervals([], []).
intervals([Value|Values], Intervals) :- pairs(Values, Pairs), merged(Pairs, Value, Value, Intervals).
pairs([], []).
pairs([Value|Values], [Value-Value|Pairs]) :- pairs(Values, Pairs).
merged([], Low, High, [Low-High]).
merged([From-To|Pairs], Low, High, Intervals) :-
    ( From =< High + 1 -> Top is max(High, To), merged(Pairs, Low, Top, Intervals)
    ; Intervals = [Low-High|Rest], merged(Pairs, From, To, Rest) ).

% A row: the columns, with plain variables, and a list Variable=Domain.
row(Columns, row(Columns, [])) :- ground(Columns), !.
row(Columns, row(Copy, Domains)) :-
    term_variables(Columns, Variables), domains(Variables, Plains, Domains),
    ( Domains == [] -> Copy = Columns ; plain(Columns, Variables, Plains, Copy) ).
domains([], [], []).
domains([Variable|Variables], [Plain|Plains], Domains) :-
    domain_of(Variable, Domain), ( Domain == any -> Domains = Rest ; Domains = [Plain=Domain|Rest] ), domains(Variables, Plains, Rest).

% The least generalisation of rows: the columns of all of them are walked at once, and the same tuple gets the same variable.
generalise([Row], Row) :- !.
generalise(Rows, row(Columns, Domains)) :-
    parts(Rows, Lists, Known), general(Lists, Columns, Table), tables(Table, Known, Domains).
parts([], [], []).
parts([row(Columns, Domains)|Rows], [Columns|Lists], Known) :- parts(Rows, Lists, Rest), append(Domains, Rest, Known).
general([Term|Terms], Copy, Table) :-
    nonvar(Term), functor(Term, Name, Arity), all_have(Terms, Name, Arity), !,
    functor(Copy, Name, Arity), arguments(0, Arity, [Term|Terms], Copy, Table).
general(Terms, Variable, Table) :- found(Table, Terms, Variable).
all_have([], _, _).
all_have([Term|Terms], Name, Arity) :- nonvar(Term), functor(Term, Name, Arity), all_have(Terms, Name, Arity).
arguments(Arity, Arity, _, _, _) :- !.
arguments(Place, Arity, Terms, Copy, Table) :-
    Next is Place + 1, each(Terms, Next, Arguments), arg(Next, Copy, Argument), general(Arguments, Argument, Table),
    arguments(Next, Arity, Terms, Copy, Table).
each([], _, []).
each([Term|Terms], Place, [Argument|Arguments]) :- arg(Place, Term, Argument), each(Terms, Place, Arguments).
found(Table, Terms, Variable) :- var(Table), !, Table = [Terms-Variable|_].
found([Known-Bound|Table], Terms, Variable) :- ( Known == Terms -> Variable = Bound ; found(Table, Terms, Variable) ).
tables(Table, _, []) :- var(Table), !.
tables([Terms-Variable|Table], Known, Domains) :-
    ( pairs_of(Terms, Known, Pairs) -> sort(Pairs, [Low-High|Sorted]), merged(Sorted, Low, High, Domain), Domains = [Variable=Domain|Rest]
    ; Domains = Rest ),
    tables(Table, Known, Rest).
pairs_of([], _, []).
pairs_of([Term|Terms], Known, Pairs) :-
    ( integer(Term) -> Pairs = [Term-Term|Rest] ; var(Term), known(Known, Term, Domain), append(Domain, Rest, Pairs) ), pairs_of(Terms, Known, Rest).
known([Variable=Domain|_], Term, Found) :- Variable == Term, !, Found = Domain.
known([_|Known], Term, Domain) :- known(Known, Term, Domain).

% What a search tells of its goal: fail, same, or narrow(Row).
search(_, consistent, Goal, _, Verdict) :- !, ( \+ call(Goal) -> Verdict = fail ; Verdict = same ).
search(_, unique, Goal, Variables, Verdict) :- !,
    findall(Row, (call(Goal), row(Variables, Row)), Rows), sort(Rows, Different),
    ( Different == [] -> Verdict = fail ; Different = [Row] -> verdict(Row, Variables, Verdict) ; Verdict = same ).
search(list, most, Goal, Variables, Verdict) :- !,
    findall(Row, (call(Goal), row(Variables, Row)), Rows),
    ( Rows == [] -> Verdict = fail ; generalise(Rows, Row), verdict(Row, Variables, Verdict) ).
search(step, most, Goal, Variables, Verdict) :-
    remember(none),
    ( \+ (call(Goal), row(Variables, Row), join(Row, Joined), is_call(Joined, Variables)) ->
        recalled(Known), ( Known == none -> Verdict = fail ; verdict(Known, Variables, Verdict) )
    ; Verdict = same ).
join(Row, Joined) :- recalled(Known), ( Known == none -> Joined = Row ; generalise([Known, Row], Joined) ), remember(Joined).
verdict(Row, Variables, Verdict) :- ( is_call(Row, Variables) -> Verdict = same ; Verdict = narrow(Row) ).
is_call(row(Columns, Domains), Variables) :- changed(Variables, Columns, Columns, Domains, []).

% The variables that a row changes: bound, tied to another one, or of a smaller domain.
changed([], [], _, _, []).
changed([Variable|Variables], [Column|Columns], All, Domains, Changed) :-
    ( var(Column), once_in(All, Column), domain_of(Variable, Old), ( known(Domains, Column, New) -> true ; New = any ), Old == New -> Changed = Rest
    ; Changed = [Variable|Rest] ),
    changed(Variables, Columns, All, Domains, Rest).
once_in([Term|Terms], Column) :- ( Term == Column -> \+ among(Terms, Column) ; once_in(Terms, Column) ).
among([Term|Terms], Variable) :- ( Term == Variable -> true ; among(Terms, Variable) ).

% Turns. The goals that wait are an open list, and Waits says of each goal whether it is in it.
run(Way, File) :-
    see(File), read(query(Names, Store, Given, Goals, Indices, Watchers)), seen,
    ( call(Given), marks(Goals, 1, Waits, List, End), Flat = flat(yes), columns(Names, Columns), flatness(Columns, Flat),
      turns(List, End, Way, q(Store, Goals, Indices, Watchers, Waits, Flat)) -> told(Names) ; write(no), nl ).

at(Place, Blocks, Value) :- Block is (Place - 1) // 200 + 1, Rest is (Place - 1) mod 200 + 1, arg(Block, Blocks, Term), arg(Rest, Term, Value).
put_at(Place, Blocks, Value) :- Block is (Place - 1) // 200 + 1, Rest is (Place - 1) mod 200 + 1, arg(Block, Blocks, Term), setarg(Rest, Term, Value).

% All goals wait at first.
marks(Goals, Number, Waits, List, End) :-
    ( at(Number, Goals, _) -> List = [Number|Rest], Next is Number + 1, marks(Goals, Next, Waits, Rest, End)
    ; List = End, functor(Goals, _, Count), functor(Waits, blocks, Count), mark(Count, Waits) ).
mark(0, _) :- !.
mark(Block, Waits) :- functor(Term, block, 200), yes(200, Term), arg(Block, Waits, Term), Before is Block - 1, mark(Before, Waits).
yes(0, _) :- !.
yes(Place, Term) :- arg(Place, Term, yes), Before is Place - 1, yes(Before, Term).
turns(List, End, _, _) :- List == End, !.
turns([1|_], _, plain, q(_, Goals, _, _, _, _)) :- !,
    at(1, Goals, Mode-Goal), term_variables(Goal, Variables), search(list, Mode, Goal, Variables, Verdict), !,
    ( Verdict = narrow(row(Columns, Domains)) -> Variables = Columns, constrained(Domains) ; Verdict = same ).
turns([Number|List], End, Way, Query) :-
    Query = q(_, Goals, _, _, Waits, _), put_at(Number, Waits, no), at(Number, Goals, Mode-Goal),
    term_variables(Goal, Variables), search(Way, Mode, Goal, Variables, Verdict), !,
    committed(Verdict, Number, Variables, Query, End, New), turns(List, New, Way, Query).
committed(same, _, _, _, End, End).
committed(narrow(row(Columns, Domains)), Number, Variables, Query, End, New) :-
    changed(Variables, Columns, Columns, Domains, Changed), touched(Number, Changed, Query, Touched), sort(Touched, Sorted),
    Query = q(_, _, _, _, Waits, Flat), woken(Sorted, Waits, End, New), flatness(Columns, Flat), Variables = Columns, constrained(Domains).
constrained([]).
constrained([Variable=Domain|Domains]) :- constrain(Variable, Domain), constrained(Domains).
woken([], _, End, End).
woken([Number|Numbers], Waits, End, New) :-
    ( at(Number, Waits, yes) -> Rest = End ; put_at(Number, Waits, yes), End = [Number|Rest] ), woken(Numbers, Waits, Rest, New).

% The goals with a changed variable: by the places of the store while it is flat (each column an atomic term or a variable
% of its own), and from then on by a look at all goals.
touched(Number, Changed, q(Store, Goals, Indices, Watchers, _, flat(Flat)), Touched) :-
    ( Flat == yes -> at(Number, Indices, Places), watching(Places, Store, Changed, Watchers, Touched)
    ; looked(1, Goals, Changed, Touched) ).
flatness(Columns, Flat) :- ( is_flat(Columns) -> true ; setarg(1, Flat, no) ).
is_flat([]).
is_flat([Column|Columns]) :- ( atomic(Column) -> true ; free(Column), \+ among(Columns, Column) ), is_flat(Columns).
watching([], _, _, _, []).
watching([Place|Places], Store, Changed, Watchers, Touched) :-
    at(Place, Store, Value),
    ( among(Changed, Value) -> at(Place, Watchers, Goals), append(Goals, Rest, Touched) ; Touched = Rest ),
    watching(Places, Store, Changed, Watchers, Rest).
looked(Number, Goals, Changed, Touched) :-
    ( at(Number, Goals, _-Goal) ->
        term_variables(Goal, Variables), ( meets(Variables, Changed) -> Touched = [Number|Rest] ; Touched = Rest ),
        Next is Number + 1, looked(Next, Goals, Changed, Rest)
    ; Touched = [] ).
meets([Variable|Variables], Changed) :- ( among(Changed, Variable) -> true ; meets(Variables, Changed) ).

% The answer.
told(Names) :- columns(Names, Columns), row(Columns, row(Plain, Domains)), term_variables(Plain, Variables), named(Variables, 0, Domains, Texts), lines(Names, Plain), told_domains(Texts), write(yes), nl.
columns([], []).
columns([_=Column|Names], [Column|Columns]) :- columns(Names, Columns).
named([], _, _, []).
named([Variable|Variables], Number, Domains, Texts) :-
    ( known(Domains, Variable, Domain) -> Texts = [Variable=Domain|Rest] ; Texts = Rest ),
    number_codes(Number, Digits), atom_codes(Variable, [0'_|Digits]),
    Next is Number + 1, named(Variables, Next, Domains, Rest).
lines([], []).
lines([Name=_|Names], [Column|Columns]) :- write(Name), write(' = '), write(Column), nl, lines(Names, Columns).
told_domains([]).
told_domains([Variable=[Interval|Intervals]|Texts]) :- write(Variable), write(' :: ['), interval(Interval), rest(Intervals), write(']'), nl, told_domains(Texts).
rest([]).
rest([Interval|Intervals]) :- write(', '), interval(Interval), rest(Intervals).
interval(Low-High) :- ( Low =:= High -> write(Low) ; write(Low), write('..'), write(High) ).
