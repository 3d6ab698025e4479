// This model is a capacitor that is charged through a resistor from 5 V at the time 0. Voltage and current are measured.
// Units: the model uses ms, V, mA, kOhm and uF.
model charge "a capacitor that is charged through a resistor"
  parameter Real R(unit = "kOhm") = 1, C(unit = "uF") = 1, Vin(unit = "V") = 5;
  Real v(start = 0, unit = "V"), i(unit = "mA");
equation
  der(v) = (Vin - v)/(R*C);
  i = (Vin - v)/R;
  annotation(experiment(StopTime = 6, QSS_CoefBits = 16, QSS_TickBits = 16, QSS_LevelBits = 16, QSS_Quantum = 0.0078125, QSS_TimeUnit = "ms"));
end charge;
