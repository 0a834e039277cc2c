% status: Satisfiable
% The contrary of the axiom T has a model in K.
tff(system,logic,$modal == [$modalities == $modal_system_K]).
tff(goal,negated_conjecture,~ ( [.] p => p )).
