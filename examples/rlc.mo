// This model is a series RLC circuit after a step of 5 V (R = 5 Ohm, L = 100 uH, C = 1 uF). The circuit is
// under-damped, and its natural frequency is 16 kHz.
// Units: the model uses us, V, A, Ohm, uH and uF.
// Look at the voltage v, which oscillates around 5 V, and at the current i.
// Plot: tools/qss-plot examples/rlc.mo --names v,i
model rlc "series RLC"
  parameter Real R = 5 "Ohm", L = 100 "uH", C = 1 "uF", Vin = 5 "V";
  Real i(start = 0, unit = "A"), v(start = 0, unit = "V");
equation
  der(i) = (Vin - R*i - v)/L;
  der(v) = i/C;
  annotation(experiment(StopTime = 300, QSS_CoefBits = 28, QSS_TickBits = 8, QSS_LevelBits = 20, QSS_Quantum = 0.0009765625, QSS_TimeUnit = "us"));
end rlc;
