from paxidore import poseidon

print("%064x" % poseidon.hash([1, 2]))
