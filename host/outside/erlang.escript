#!/usr/bin/env escript
%% Encodes each {Module, Type, Value} of a file with the modules that Erlang's asn1 compiler made, and prints
%% the bits and the octets. Run in the folder with the compiled modules.

main([File]) ->
    {ok, Questions} = file:consult(File),
    lists:foreach(fun(Question) -> io:put_chars([answer(Question), $\n]) end, Questions).

answer({Module, Type, Value}) ->
    try
        {ok, Octets} = Module:encode(Type, Value),
        [integer_to_list(bits(Module, Type, Value)), $\s, hex(Octets)]
    catch
        _:Reason -> io_lib:format("refused ~0P", [Reason, 12])
    end.

%% The bits before a last bit 1, which is put behind the value here.
bits(Module, Type, Value) ->
    Marked = list_to_atom(atom_to_list(Module) ++ "Marked"),
    {ok, Octets} = Marked:encode(list_to_atom("Marked-" ++ atom_to_list(Type)), {r, Value, 2}),
    before_last_one(Octets, bit_size(Octets) - 1).

before_last_one(Octets, Bits) ->
    case Octets of
        <<_:Bits, 1:1, _/bitstring>> -> Bits;
        _ -> before_last_one(Octets, Bits - 1)
    end.

hex(Octets) ->
    string:lowercase(binary:encode_hex(Octets)).
