model cable "a voltage step at one end of a cable of cells"
  parameter Integer cells = 10;
  parameter Real rate = 4;
  Real u[cells];
equation
  der(u[1]) = rate*(1 - 2*u[1] + u[2]);
  for i in 2:cells - 1 loop
    der(u[i]) = rate*(u[i - 1] - 2*u[i] + u[i + 1]);
  end for;
  der(u[cells]) = rate*(u[cells - 1] - u[cells]);
initial algorithm
  for i in 1:cells loop
    u[i] := 0;
  end for;
  annotation(experiment(StopTime = 20, QSS_CoefBits = 4, QSS_TickBits = 6, QSS_LevelBits = 10, QSS_Quantum = 0.0078125, QSS_TimeUnit = "s"));
end cable;
