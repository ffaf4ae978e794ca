% The inference rules of the user's document (document 004, section 5), for clingo. They have no negation, so their one answer set is the least set of
% marks. Given: window(W), and(R,A,B), or(R,A,B), look(R,C,K), opposite(R,X) for the rows, top(R), and given_true(R,T), given_false(R,T) for the
% readings and what the lent table held. true(R,T) and false(R,T) are the marks of row R at tick T.
tick(0..W-1) :- window(W).

% And: true gives both true; both true gives true; a false child gives false; false and one child true gives the other false.
true(A,T)  :- and(R,A,B), true(R,T).
true(B,T)  :- and(R,A,B), true(R,T).
true(R,T)  :- and(R,A,B), true(A,T), true(B,T).
false(R,T) :- and(R,A,B), false(A,T).
false(R,T) :- and(R,A,B), false(B,T).
false(B,T) :- and(R,A,B), false(R,T), true(A,T).
false(A,T) :- and(R,A,B), false(R,T), true(B,T).

% Or: the same with true and false traded.
false(A,T) :- or(R,A,B), false(R,T).
false(B,T) :- or(R,A,B), false(R,T).
false(R,T) :- or(R,A,B), false(A,T), false(B,T).
true(R,T)  :- or(R,A,B), true(A,T).
true(R,T)  :- or(R,A,B), true(B,T).
true(B,T)  :- or(R,A,B), true(R,T), false(A,T).
true(A,T)  :- or(R,A,B), true(R,T), false(B,T).

% Look at offset k: its value at t and its child's at t+k give each other, only where both ticks are in the window.
true(C,T+K)  :- look(R,C,K), true(R,T), tick(T+K).
false(C,T+K) :- look(R,C,K), false(R,T), tick(T+K).
true(R,S-K)  :- look(R,C,K), true(C,S), tick(S-K).
false(R,S-K) :- look(R,C,K), false(C,S), tick(S-K).

% Not: its value and the signal's opposite value give each other.
false(X,T) :- opposite(R,X), true(R,T).
true(X,T)  :- opposite(R,X), false(R,T).
false(R,T) :- opposite(R,X), true(X,T).
true(R,T)  :- opposite(R,X), false(X,T).

% The starting marks are every rule's top true at every tick of the window (defining rules too), the readings, and what the lent table held.
true(R,T)  :- top(R), tick(T).
true(R,T)  :- given_true(R,T).
false(R,T) :- given_false(R,T).

% A clash is a row with both marks at one tick.
clash :- true(R,T), false(R,T).

#show true/2.
#show false/2.
#show clash/0.
