// This model is an interleaved buck converter with N = 4 phases. N may be increased to some hundreds.
// Units: the model uses us, V, A, uH, uF and Ohm.
// Look at iL[1], the current of one phase, and at total[4], the sum of the currents of all four phases. Each phase is on
// for half of a period, and the phases follow each other by a quarter of a period. So after the first period exactly two
// phases are on at each time, and the ripples of the phases cancel almost completely in the sum.
// Plot: tools/qss-plot examples/interleaved.mo --names 'uC,iL[1]+total[4]'
model interleaved "interleaved buck converter"
  parameter Integer N = 4;
  parameter Real U = 24 "V", L = 100 "uH", C = 100 "uF", R = 10 "Ohm", period = 100 "us", duty = 0.5;
  Real iL[N](each unit = "A"), uC(start = 0, unit = "V"), total[N] "total[k] is the current of the phases 1 to k";
  discrete Real s[N], on[N], off[N];
initial algorithm
  for k in 1:N loop
    on[k] := (k - 1)*period/N + period/64;
    off[k] := (k - 1)*period/N + period/64 + period*duty;
  end for;
equation
  total[1] = iL[1];
  for k in 2:N loop
    total[k] = total[k - 1] + iL[k];
  end for;
  for k in 1:N loop
    der(iL[k]) = (U*s[k] - uC - iL[k]/8)/L;
  end for;
  der(uC) = (total[N] - uC/R)/C;
algorithm
  for k in 1:N loop
    when time >= on[k] then
      s[k] := 1;
      on[k] := pre(on[k]) + period;
    end when;
    when time >= off[k] then
      s[k] := 0;
      off[k] := pre(off[k]) + period;
    end when;
  end for;
  annotation(experiment(StopTime = 2000, QSS_CoefBits = 30, QSS_TickBits = 6, QSS_LevelBits = 20, QSS_Quantum = 0.015625, QSS_TimeUnit = "us"));
end interleaved;
