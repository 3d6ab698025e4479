// This model is a chain of 50 masses with springs and dampers. A constant force pulls at one end of the chain.
// Units: the model uses s, m, N and kg. Positions have a finer quantum than speeds, because a stiff spring turns a
// small error of a position into a large error of the force.
// Look at the positions x[1], x[25] and x[50]. The pull travels through the chain and is reflected at the other end.
// Plot: tools/qss-plot examples/massspring.mo --names 'x[1],x[25],x[50]'
model massspring "chain of masses"
  parameter Integer N = 50;
  parameter Real k = 400, c = 8, m = 1, F = 1;
  Real x[N](each unit = "m") annotation(QSS_Quantum = 0.00006103515625), v[N];
equation
  for i in 1:N loop
    der(x[i]) = v[i];
  end for;
  der(v[1]) = (k*(x[2] - 2*x[1]) + c*(v[2] - 2*v[1]))/m;
  for i in 2:N - 1 loop
    der(v[i]) = (k*(x[i - 1] - 2*x[i] + x[i + 1]) + c*(v[i - 1] - 2*v[i] + v[i + 1]))/m;
  end for;
  der(v[N]) = (F + k*(x[N - 1] - x[N]) + c*(v[N - 1] - v[N]))/m;
  annotation(experiment(StopTime = 15, QSS_CoefBits = 20, QSS_TickBits = 14, QSS_LevelBits = 20, QSS_Quantum = 0.001953125, QSS_TimeUnit = "s"));
end massspring;
