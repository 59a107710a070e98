%% What the module 'Schema-Set' in the current folder, which asn1ct compiled with `+maps`, makes of octets. Each line of the input is
%% `decode TYPE HEX`, for which two lines are written: the value as JSON, with a text in hexadecimal, and the octets that it is
%% encoded to; or `values TYPE N`, for which the octets of N random values are written. An empty line ends each.
-module(interop).
-export([main/0]).

main() ->
    io:setopts([{encoding, latin1}]),
    lines().

lines() ->
    case io:get_line("") of
        eof -> halt(0);
        Line ->
            run(string:lexemes(Line, " \n")),
            io:format("~n"),
            lines()
    end.

run(["decode", Name, Hex]) ->
    Type = list_to_atom(Name),
    try
        {ok, Value} = 'Schema-Set':decode(Type, binary:decode_hex(list_to_binary(Hex))),
        io:format("~s~n", [json(Value)]),
        encode(Type, Value)
    catch
        _:Why -> io:format("~0.P~n", [Why, 20])
    end;
run(["values", Name, Count]) ->
    Type = list_to_atom(Name),
    [encode(Type, with_texts(element(2, asn1ct:value('Schema-Set', Type)))) || _ <- lists:seq(1, list_to_integer(Count))].

encode(Type, Value) ->
    try
        {ok, Octets} = 'Schema-Set':encode(Type, Value),
        io:format("~s~n", [binary:encode_hex(Octets)])
    catch
        _:Why -> io:format("~0.P~n", [Why, 20])
    end.

json(Value) when is_integer(Value) -> integer_to_list(Value);
json(Value) when is_atom(Value) -> [$", atom_to_list(Value), $"];
json(Value) when is_binary(Value) -> [$", binary:encode_hex(Value), $"];
json(Value) when is_list(Value) -> [$[, lists:join($,, [json(It) || It <- Value]), $]];
json({Name, Value}) -> [$[, json(Name), $,, json(Value), $]];
json(Value) when is_map(Value) -> [${, lists:join($,, [[json(Name), $:, json(It)] || {Name, It} <- maps:to_list(Value)]), $}].

%% The same value with other texts: those of asn1ct are prefixes of one text, which has characters that XML doesn't have.
with_texts(Value) when is_binary(Value) ->
    Texts = [<<>>, <<"a">>, <<"A1">>, <<"7">>, <<"true">>, <<"two words">>, <<" x">>, <<"x\ty">>, <<16#C3, 16#A9>>, Value],
    lists:nth(rand:uniform(length(Texts)), Texts);
with_texts(Value) when is_list(Value) -> [with_texts(It) || It <- Value];
with_texts({Name, Value}) -> {Name, with_texts(Value)};
with_texts(Value) when is_map(Value) -> maps:map(fun(_, It) -> with_texts(It) end, Value);
with_texts(Value) -> Value.
