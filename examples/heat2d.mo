// This model is the heat equation in a plate of 20 by 20 cells with one hot side. The temperature in row i and column j
// is T[(i - 1)*n + j].
// Units: the model uses s and degrees Celsius.
// Look at T[10], T[110], T[210] and T[310], which are cells on a line from the hot side into the plate. The model has
// 400 states, of which only few change their level at one tick.
// Plot: tools/qss-plot examples/heat2d.mo --names 'T[10]+T[110]+T[210]+T[310]'
model heat2d "heat equation in a plate"
  parameter Integer n = 20;
  parameter Real a = 1, hot = 100;
  Real T[n*n](each unit = "degC");
equation
  for i in 2:n - 1 loop
    for j in 2:n - 1 loop
      der(T[(i - 1)*n + j]) = a*(T[(i - 2)*n + j] + T[i*n + j] + T[(i - 1)*n + j - 1] + T[(i - 1)*n + j + 1] - 4*T[(i - 1)*n + j]);
    end for;
  end for;
  for j in 2:n - 1 loop
    der(T[j]) = a*(hot + T[n + j] + T[j - 1] + T[j + 1] - 4*T[j]);
    der(T[(n - 1)*n + j]) = a*(T[(n - 2)*n + j] + T[(n - 1)*n + j - 1] + T[(n - 1)*n + j + 1] - 4*T[(n - 1)*n + j]);
    der(T[(j - 1)*n + 1]) = a*(T[(j - 2)*n + 1] + T[j*n + 1] + T[(j - 1)*n + 2] - 4*T[(j - 1)*n + 1]);
    der(T[(j - 1)*n + n]) = a*(T[(j - 2)*n + n] + T[j*n + n] + T[(j - 1)*n + n - 1] - 4*T[(j - 1)*n + n]);
  end for;
  der(T[1]) = a*(hot + T[n + 1] + T[2] - 4*T[1]);
  der(T[n]) = a*(hot + T[n + n] + T[n - 1] - 4*T[n]);
  der(T[(n - 1)*n + 1]) = a*(T[(n - 2)*n + 1] + T[(n - 1)*n + 2] - 4*T[(n - 1)*n + 1]);
  der(T[n*n]) = a*(T[(n - 1)*n] + T[n*n - 1] - 4*T[n*n]);
  annotation(experiment(StopTime = 200, QSS_CoefBits = 8, QSS_TickBits = 10, QSS_LevelBits = 12, QSS_Quantum = 0.25, QSS_TimeUnit = "s"));
end heat2d;
