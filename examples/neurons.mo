// This model is a ring of 100 leaky integrate-and-fire neurons, each with its own input. A spike of a neuron raises the
// voltage of the next neuron.
// Units: times are in ms, and voltages have no unit.
// Look at the voltage v of some neurons, and at the branches that fire. Each firing of a branch is a spike.
// Plot: tools/qss-plot examples/neurons.mo --names 'v[1],v[50],v[100]' --to 120
model neurons "leaky integrate and fire"
  parameter Integer N = 100;
  parameter Real tau = 20, threshold = 1, kick = 0.05;
  Real v[N];
initial algorithm
  for i in 1:N loop
    v[i] := i/(2*N);
  end for;
equation
  for i in 1:N loop
    der(v[i]) = (1.05 + i/(4*N) - v[i])/tau;
  end for;
algorithm
  for i in 1:N - 1 loop
    when v[i] > threshold then
      reinit(v[i], 0);
      reinit(v[i + 1], v[i + 1] + kick);
    end when;
  end for;
  when v[N] > threshold then
    reinit(v[N], 0);
    reinit(v[1], v[1] + kick);
  end when;
  annotation(experiment(StopTime = 500, QSS_CoefBits = 24, QSS_TickBits = 10, QSS_LevelBits = 20, QSS_Quantum = 0.00390625, QSS_TimeUnit = "ms"));
end neurons;
