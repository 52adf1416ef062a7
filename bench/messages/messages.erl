%% The peers: the same messages between two processes, and the same counting. Each is timed without the start of the system.
-module(messages).
-export([main/1]).

main([Name]) ->
    {Took, _} = timer:tc(fun() -> peer(Name) end),
    io:format("took ~b~n", [Took]).

peer("queries") -> queries();
peer("commands") -> commands();
peer("counting") -> counters(8, 400000);
peer("many") -> counters(64, 50000).

queries() -> print(ask(spawn(fun() -> cell(0) end), 200000, 0)).

ask(_, 0, Sum) -> Sum;
ask(Cell, N, Sum) ->
    Cell ! {next, self()},
    receive {item, Item} -> ask(Cell, N - 1, Sum + Item) end.

%% 1,000 in a session, as a reservation has.
commands() ->
    Cell = spawn(fun() -> cell(0) end),
    lists:foreach(fun(_) -> tell(Cell, 1000) end, lists:seq(1, 200)),
    Cell ! {item, self()},
    receive {item, Item} -> print(Item) end.

tell(_, 0) -> done;
tell(Cell, N) ->
    Cell ! {add, N},
    tell(Cell, N - 1).

cell(Item) ->
    receive
        {next, From} -> From ! {item, Item + 1}, cell(Item + 1);
        {add, N} -> cell(Item + N);
        {item, From} -> From ! {item, Item}, cell(Item)
    end.

counters(Count, Limit) ->
    All = self(),
    [spawn(fun() -> All ! {total, count(Limit, 0)} end) || _ <- lists:seq(1, Count)],
    [receive {total, Total} -> print(Total) end || _ <- lists:seq(1, Count)].

count(0, Total) -> Total;
count(N, Total) -> count(N - 1, add(Total)).

add(Total) -> Total + 1.

print(N) -> io:format("~b~n", [N]).
