% status: CounterSatisfiable
% In S4 two seen worlds need not see a common world.
tff(system,logic,$modal == [$modalities == $modal_system_S4]).
tff(goal,conjecture,<.> [.] p => [.] <.> p).
