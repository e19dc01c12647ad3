//# state : the script that shows units with the results under way, registers, memory and output
function bars(row){
return row.flatMap((word,delay)=>{
if(!delay||word=='-')return [];
const bar=make('span','due');
bar.style.width=delay+'rem';
return [shown(word)+' in '+delay,bar];
});
}
function flight(state){
const ports=state.units.map((row,unit)=>make('tr','',make('td','',names.unit[unit]),make('td','',shown(state.kept.get(names.unit[unit]+'.o')||'-')),
make('td','',shown(row[0])),make('td','',...bars(row))));
return make('table','',make('tr','',...['unit','operand','result','under way'].map(name=>make('th','',name))),...ports);
}
//# cells : the script that shows registers and memory
function registers(state,before){
const files=state.files.map((row,file)=>make('div','',make('b','',names.file[file]+' '),
...row.map((word,index)=>cell(index,word,before&&before.files[file][index]))));
const others=names.imm.flatMap((name,k)=>state.imms[k].map((word,index)=>cell(name+'.'+index,word,before&&before.imms[k][index])));
const back=state.kept.get('gcu.ra');
return [...files,make('div','',...others,...back=='-'?[]:[cell('gcu.ra',back,before&&before.kept.get('gcu.ra'))])];
}
function memoryCells(state){
const all=[...state.memory].sort((a,b)=>a[0]-b[0]);
return all.length?all.map(([address,word])=>cell(address,word,state.changed.has(address)?'':word)):['nothing was stored'];
}
//# loads : the script that shows the data words that the moves of a state read: a word is the result that begins in the next state
function loads(state,next){
return state.acts.filter(act=>act.look=='active'&&act.target.endsWith('.t.ldw')).map(act=>{
const unit=names.unit.indexOf(act.target.split('.')[0]),before=state.units[unit],after=next?next.units[unit]:[];
const word=after.find((word,delay)=>delay&&word!='-'&&(before[delay+1]||'-')=='-')||after[0];
return make('span','cell','reads '+act.word+(word?': '+shown(word):''));
});
}
//# span : the script that tells which cycles are shown of those that were asked for, and which part of the code
function spanText(){
const first=states[0].cycle,last=states[states.length-1].cycle;
const rest=+first<asked.first?'; the run is over before':end=='more cycles may follow'?'; more may follow':'; then '+end;
const part=rows<instructions?'; of the code '+rows+' of '+instructions+' instructions are shown, and those that are reached':'';
return 'cycles '+first+' to '+last+' shown, '+asked.bound+(asked.first?' from cycle '+asked.first:'')+' asked for'+rest+part;
}
//# show : the script that shows a state
let at=0,timer=0;
function show(to){
at=Math.max(0,Math.min(states.length-1,to));
const state=states[at],before=states[at-1],jump=state.jump;
find('slider').value=at;
find('where').textContent='cycle '+state.cycle+', address '+state.pc+(at==states.length-1?', '+end:'');
find('more').textContent=[...jump?[jump.kind+' to '+shown(jump.to)+' in '+jump.left]:[],...state.input?['next input '+shown(state.input)]:[]].join(', ');
showCode(state);
if(bySource){showSource(state);showVariables(state,before);}
find('flight').replaceChildren(flight(state));
find('registers').replaceChildren(...registers(state,before));
find('memory').replaceChildren(...memoryCells(state));
find('reads').replaceChildren(...loads(state,states[at+1]));
find('output').textContent=(+states[0].cycle?'.. ':'')+state.out.map(shown).join(' ');
showMoves(state);
}
//# playing : the script that plays a run
const speeds=[1,2,5,10];
let speed=1;
const tick=()=>{clearInterval(timer);timer=setInterval(()=>at<states.length-1?show(at+1):stop(),1000/speeds[speed]);};
function stop(){clearInterval(timer);timer=0;find('play').textContent='play';}
function play(){
if(timer)return stop();
find('play').textContent='pause';
tick();
}
function faster(){
speed=(speed+1)%speeds.length;
find('speed').textContent=speeds[speed]+' a second';
if(timer)tick();
}
//# buttons : the script of buttons, slider and keys
function reform(){form=(form+1)%3;find('form').textContent=forms[form];show(at);}
find('title').textContent=document.title;
find('span').textContent=spanText();
find('slider').max=states.length-1;
find('slider').oninput=event=>show(+event.target.value);
find('to').onchange=event=>{show(+event.target.value-states[0].cycle);event.target.blur();};
find('back').onclick=()=>show(at-1);
find('forward').onclick=()=>show(at+1);
find('play').onclick=play;
find('form').onclick=reform;
find('speed').onclick=faster;
onKeys({ArrowRight:()=>show(at+1),ArrowLeft:()=>show(at-1),Home:()=>show(0),End:()=>show(states.length-1),p:play,f:reform,s:faster,
g:()=>find('to').focus(),'+':()=>{resize(1.1);show(at);},'-':()=>{resize(1/1.1);show(at);}});
show(0);
