%% The turns of the scripts `spin`, `calls` and `fan` as Erlang processes: an actor is a process, a turn is a message that it
%% takes, and what a task keeps between its turns travels in the messages. No journal is kept, and nothing is undone.
%% It prints how many turns there were, and the microseconds that they took.
-module(processes).
-export([main/1]).

main([Case]) ->
    Start = erlang:monotonic_time(microsecond),
    Turns =
        case Case of
            "spin" -> spin(1000, 990);
            "calls" -> calls(1000, 490);
            "fan" -> fan(60, 16, 60)
        end,
    Spent = erlang:monotonic_time(microsecond) - Start,
    io:format("run ~B turns~nrun ~B us~n", [Turns, Spent]),
    halt().

%% Each task takes its turn, and sends itself the next one.
spin(Tasks, Times) ->
    Keeper = self(),
    Counter = spawn(fun() -> counter(0, Tasks, 0, Keeper) end),
    lists:foreach(fun(Task) -> Counter ! {turn, Task, Times} end, lists:seq(1, Tasks)),
    receive
        {ended, Turns} -> Turns
    end.

counter(_Count, 0, Turns, Keeper) ->
    Keeper ! {ended, Turns};
counter(Count, Tasks, Turns, Keeper) ->
    receive
        {turn, _Task, 0} ->
            counter(Count, Tasks - 1, Turns + 1, Keeper);
        {turn, Task, Left} when Count + 1 >= 0 ->
            self() ! {turn, Task, Left - 1},
            counter(Count + 1, Tasks, Turns + 1, Keeper)
    end.

%% Each task asks the adder, and goes on when its answer comes.
calls(Tasks, Times) ->
    Keeper = self(),
    Adder = spawn(fun() -> adder(0, 0) end),
    Asker = spawn(fun() -> asker(0, Tasks, 0, Adder, Keeper) end),
    lists:foreach(fun(Task) -> Asker ! {answer, Task, Times, 0} end, lists:seq(1, Tasks)),
    receive
        {ended, Turns} ->
            Adder ! {turns, self()},
            receive
                {turns, Others} -> Turns + Others
            end
    end.

asker(_Answers, 0, Turns, _Adder, Keeper) ->
    Keeper ! {ended, Turns};
asker(Answers, Tasks, Turns, Adder, Keeper) ->
    receive
        {answer, _Task, 0, _Sum} ->
            asker(Answers + 1, Tasks - 1, Turns + 1, Adder, Keeper);
        {answer, Task, Left, _Sum} when Answers + 1 >= 0 ->
            Adder ! {gain, self(), Task, Left - 1, 1},
            asker(Answers + 1, Tasks, Turns + 1, Adder, Keeper)
    end.

adder(Total, Turns) ->
    receive
        {gain, From, Task, Left, Amount} when Total + Amount >= 0 ->
            From ! {answer, Task, Left, Total + Amount},
            adder(Total + Amount, Turns + 1);
        {turns, From} ->
            From ! {turns, Turns}
    end.

%% Parents have a group of children, and each child asks the adder as often. A parent's turns are counted with its children's answers.
fan(Parents, Children, Times) ->
    Keeper = self(),
    Adder = spawn(fun() -> adder(0, 0) end),
    Home = spawn(fun() -> home(#{}, Parents, Adder, Keeper, 0) end),
    lists:foreach(fun(Parent) -> Home ! {parent, Parent, Children, Times} end, lists:seq(1, Parents)),
    receive
        {ended, Turns} ->
            Adder ! {turns, self()},
            receive
                {turns, Others} -> Turns + Others
            end
    end.

home(_Waiting, 0, _Adder, Keeper, Turns) ->
    Keeper ! {ended, Turns};
home(Waiting, Parents, Adder, Keeper, Turns) ->
    receive
        {parent, Parent, Children, Times} ->
            lists:foreach(fun(_) -> self() ! {answer, {Parent, 0}, Times, 0} end, lists:seq(1, Children)),
            home(Waiting#{Parent => {Children, 0}}, Parents, Adder, Keeper, Turns + 1);
        {answer, {Parent, Sum}, 0, Value} ->
            self() ! {result, Parent, Sum + Value},
            home(Waiting, Parents, Adder, Keeper, Turns + 1);
        {answer, {Parent, Sum}, Left, Value} ->
            Adder ! {gain, self(), {Parent, Sum + Value}, Left - 1, 1},
            home(Waiting, Parents, Adder, Keeper, Turns + 1);
        {result, Parent, Value} ->
            case Waiting of
                #{Parent := {1, _Sum}} ->
                    home(maps:remove(Parent, Waiting), Parents - 1, Adder, Keeper, Turns + 1);
                #{Parent := {Left, Sum}} ->
                    home(Waiting#{Parent => {Left - 1, Sum + Value}}, Parents, Adder, Keeper, Turns + 1)
            end
    end.
