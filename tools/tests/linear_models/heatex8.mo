// counterflow heat exchanger of 8 cells a side: water/water; SI
model heatex8
  parameter Integer N = 8;
  parameter Real mh = 0.2 "kg/s", mc = 0.15 "kg/s", cp = 4180 "J/kgK", UA = 1200 "W/K", Mh = 2 "kg", Mc = 2 "kg", Thin = 80, Tcin = 15;
  Real Th[N](each start = 15), Tc[N](each start = 15), q[N];
equation
  for j in 1:N loop
    q[j] = UA/N*(Th[j] - Tc[j]);
  end for;
  der(Th[1]) = (mh*cp*(Thin - Th[1]) - q[1])/(Mh/N*cp);
  for j in 2:N loop
    der(Th[j]) = (mh*cp*(Th[j-1] - Th[j]) - q[j])/(Mh/N*cp);
  end for;
  der(Tc[N]) = (mc*cp*(Tcin - Tc[N]) + q[N])/(Mc/N*cp);
  for j in 1:N-1 loop
    der(Tc[j]) = (mc*cp*(Tc[j+1] - Tc[j]) + q[j])/(Mc/N*cp);
  end for;
  annotation(experiment(StopTime = 60, QSS_CoefBits = 20, QSS_TickBits = 12, QSS_LevelBits = 20, QSS_Quantum = 0.03125));
end heatex8;
