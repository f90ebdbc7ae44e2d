from paxidore import Field, Transcript, ready_parameters

parameters = ready_parameters(Field.BLS12_381_FR, rate=2)
proving, checking = (Transcript(Field.BLS12_381_FR, parameters) for _ in range(2))
for transcript in (proving, checking):
    transcript.absorb_bytes(b"a commitment")
print(proving.squeeze(1) == checking.squeeze(1))
