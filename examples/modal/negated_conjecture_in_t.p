% status: Unsatisfiable
% The contrary of the axiom T has no model in T.
tff(system,logic,$modal == [$modalities == $modal_system_T]).
tff(goal,negated_conjecture,~ ( [.] p => p )).
