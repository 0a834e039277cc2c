% status: Unsatisfiable
% One whose beliefs are consistent, and who believes that he believes them, cannot believe that it rains and that he does not believe it.
tff(system,logic,$modal == [$modalities == $modal_system_D4]).
tff(moore,hypothesis,[.] ( rain & ~ [.] rain )).
