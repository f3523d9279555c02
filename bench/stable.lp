% The stable matchings of a marriage, one a model: p(P,R,I) and r(R,P,J) are the places of entries.
{ m(P,R) } :- p(P,R,_), r(R,P,_).
:- m(P,R), m(P,S), R < S.
:- m(P,R), m(Q,R), P < Q.
% P has R or somebody better, and R has P or somebody better
content(P,R) :- p(P,R,I), m(P,S), p(P,S,J), J <= I.
kept(R,P) :- r(R,P,I), m(Q,R), r(R,Q,J), J <= I.
:- p(P,R,_), r(R,P,_), not content(P,R), not kept(R,P).
#show m/2.
