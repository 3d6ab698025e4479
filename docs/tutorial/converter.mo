model converter "a buck converter with a sampled controller; units: us, V, A, uH, uF, siemens"
  Real iL(unit = "A"), uC(unit = "V");
  discrete Real s(start = 0), on(start = 20), off(start = 1000000), load(start = 0.2);
equation
  der(iL) = (24*s - uC)/100;
  der(uC) = (iL - load*uC)/220;
algorithm
  when time >= on then s := 1; off := on + 10 + 0.8*(12 - uC) - 0.6*(iL - 2.4); on := pre(on) + 20; end when;
  when time >= off then s := 0; end when;
  when time >= 1500 then load := 0.4; end when;
  annotation(experiment(StopTime = 3000, QSS_CoefBits = 25, QSS_TickBits = 6, QSS_LevelBits = 20, QSS_Quantum = 0.015625, QSS_TimeUnit = "us"));
end converter;
