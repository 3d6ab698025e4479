// This model is the controlled buck converter of buck_pi.mo with its switch averaged over a period, so it has no
// ripple. The file average.cert is a certificate of this model.
// Units: the model uses us, V, A, uH, uF and Ohm.
// Look at the voltage uC, which approaches 12 V. The command ./qss certify examples/average.mo examples/average.cert
// prints the certified bounds.
// Plot: tools/qss-plot examples/average.mo --names uC,iL
model average "averaged buck converter under control"
  parameter Real U = 24 "V", L = 100 "uH", C = 220 "uF", period = 20 "us", ref = 12 "V", rL = 0.1 "Ohm", g = 0.1 "siemens";
  parameter Real kp = 0.4 "A per V", ki = 0.02 "A per V and period", kc = 0.02 "duty per A";
  Real iL(unit = "A"), uC(unit = "V"), acc, duty;
equation
  duty = 0.5 + kc*(kp*(ref - uC) + acc - iL);
  der(iL) = (U*duty - uC - rL*iL)/L;
  der(uC) = (iL - g*uC)/C;
  der(acc) = ki/period*(ref - uC);
  annotation(experiment(StopTime = 4000, QSS_CoefBits = 22, QSS_TickBits = 12, QSS_LevelBits = 16, QSS_Quantum = 0.001953125, QSS_TimeUnit = "us"));
end average;
